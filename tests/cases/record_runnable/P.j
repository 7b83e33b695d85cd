; The thread keeps the Runnable in a field of its own: a write when it is made, and a read when it runs.
.class public A
.super java/lang/Object
.method public static main([Ljava/lang/String;)V
new R
dup
invokespecial R/<init>()V
astore_1
new java/lang/Thread
dup
aload_1
invokespecial java/lang/Thread/<init>(Ljava/lang/Runnable;)V
astore_2
aload_2
invokevirtual java/lang/Thread/start()V
aload_2
invokevirtual java/lang/Thread/join()V
return
.end method
.class public R
.super java/lang/Object
.implements java/lang/Runnable
.method public <init>()V
aload_0
invokespecial java/lang/Object/<init>()V
return
.end method
.method public run()V
getstatic java/lang/System/out Ljava/io/PrintStream;
iconst_5
invokevirtual java/io/PrintStream/println(I)V
return
.end method
