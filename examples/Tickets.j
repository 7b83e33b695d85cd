; Two clerks sell five tickets. Each looks whether one is left, and then takes one. Taking has a lock, but between the look and
; the taking the other clerk may take the last one; then main finds less than none left and throws. The recording lets one clerk
; sell all, so it is done: let seek find a schedule that fails, and isolate between which two events the switch does harm.
.class public Tickets
.super java/lang/Thread
.field static left I = 5
.method public <init>()V
aload_0
invokespecial java/lang/Thread/<init>()V
return
.end method
.method static synchronized take()V
getstatic Tickets/left I
iconst_1
isub
putstatic Tickets/left I
return
.end method
.method public run()V
Look:
getstatic Tickets/left I
ifle Out
invokestatic Tickets/take()V
goto Look
Out:
return
.end method
.method public static main([Ljava/lang/String;)V
new Tickets
dup
invokespecial Tickets/<init>()V
astore_1
new Tickets
dup
invokespecial Tickets/<init>()V
astore_2
aload_1
invokevirtual Tickets/start()V
aload_2
invokevirtual Tickets/start()V
aload_1
invokevirtual Tickets/join()V
aload_2
invokevirtual Tickets/join()V
getstatic Tickets/left I
ifge Good
new java/lang/IllegalStateException
dup
ldc "sold more than there were"
invokespecial java/lang/IllegalStateException/<init>(Ljava/lang/String;)V
athrow
Good:
getstatic java/lang/System/out Ljava/io/PrintStream;
getstatic Tickets/left I
invokevirtual java/io/PrintStream/println(I)V
return
.end method
