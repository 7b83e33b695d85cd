; main and 63 others are the 64 threads that may be started.
.class public A
.super java/lang/Object
.method public static main([Ljava/lang/String;)V
Loop: new java/lang/Thread
dup
invokespecial java/lang/Thread/<init>()V
invokevirtual java/lang/Thread/start()V
goto Loop
.end method
