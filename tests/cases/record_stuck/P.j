; Nobody is there to make the notify that this wait waits for.
.class public A
.super java/lang/Object
.method public static main([Ljava/lang/String;)V
new java/lang/Object
dup
invokespecial java/lang/Object/<init>()V
dup
monitorenter
invokevirtual java/lang/Object/wait()V
return
.end method
