; What is never reached has no shape, so nothing is wrong with the addition after the return.
.class public A
.super java/lang/Object
.method public static main([Ljava/lang/String;)V
return
iadd
ireturn
.end method
