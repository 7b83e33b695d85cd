.class public Drill
.super java/lang/Thread
.field static n I
.method public <init>()V
.limit stack 1
.limit locals 1
aload_0
invokespecial java/lang/Thread/<init>()V
return
.end method
.method static synchronized add()V
.limit stack 2
.limit locals 0
getstatic Drill/n I
iconst_1
iadd
putstatic Drill/n I
return
.end method
.method public run()V
.limit stack 2
.limit locals 2
iconst_0
istore_1
Loop:
iload_1
sipush 1000
if_icmpge Out
invokestatic Drill/add()V
iinc 1 1
goto Loop
Out:
return
.end method
.method public static main([Ljava/lang/String;)V
.limit stack 2
.limit locals 9
new Drill
dup
invokespecial Drill/<init>()V
astore 1
new Drill
dup
invokespecial Drill/<init>()V
astore 2
new Drill
dup
invokespecial Drill/<init>()V
astore 3
new Drill
dup
invokespecial Drill/<init>()V
astore 4
new Drill
dup
invokespecial Drill/<init>()V
astore 5
new Drill
dup
invokespecial Drill/<init>()V
astore 6
new Drill
dup
invokespecial Drill/<init>()V
astore 7
new Drill
dup
invokespecial Drill/<init>()V
astore 8
aload 1
invokevirtual Drill/start()V
aload 2
invokevirtual Drill/start()V
aload 3
invokevirtual Drill/start()V
aload 4
invokevirtual Drill/start()V
aload 5
invokevirtual Drill/start()V
aload 6
invokevirtual Drill/start()V
aload 7
invokevirtual Drill/start()V
aload 8
invokevirtual Drill/start()V
aload 1
invokevirtual Drill/join()V
aload 2
invokevirtual Drill/join()V
aload 3
invokevirtual Drill/join()V
aload 4
invokevirtual Drill/join()V
aload 5
invokevirtual Drill/join()V
aload 6
invokevirtual Drill/join()V
aload 7
invokevirtual Drill/join()V
aload 8
invokevirtual Drill/join()V
getstatic java/lang/System/out Ljava/io/PrintStream;
getstatic Drill/n I
invokevirtual java/io/PrintStream/println(I)V
return
.end method
