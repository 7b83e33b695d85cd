; A yield is an event like others: the recording goes on with the same thread. The thread that was started reads that it
; has no Runnable, and ends after main.
.class public A
.super java/lang/Object
.method public static main([Ljava/lang/String;)V
new java/lang/Thread
dup
invokespecial java/lang/Thread/<init>()V
invokevirtual java/lang/Thread/start()V
invokestatic java/lang/Thread/yield()V
return
.end method
