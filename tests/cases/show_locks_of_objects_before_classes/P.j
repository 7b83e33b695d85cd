; main has the lock of its class, then that of an object, and f that of another class.
.class public A
.super java/lang/Object
.method public static synchronized main([Ljava/lang/String;)V
new java/lang/Object
monitorenter
invokestatic B/f()V
return
.end method
.class B
.super java/lang/Object
.method static synchronized f()V
return
.end method
