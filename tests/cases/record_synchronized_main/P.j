; main enters the lock of its class first and leaves it last, and then its thread ends.
.class public A
.super java/lang/Object
.method public static synchronized main([Ljava/lang/String;)V
return
.end method
