; A join of a thread that was never started doesn't wait.
.class public A
.super java/lang/Object
.method public static main([Ljava/lang/String;)V
new java/lang/Thread
dup
invokespecial java/lang/Thread/<init>()V
invokevirtual java/lang/Thread/join()V
return
.end method
