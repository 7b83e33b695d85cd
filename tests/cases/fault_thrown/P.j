.class public A
.super java/lang/Object
.method public static main([Ljava/lang/String;)V
invokestatic A/f()V
return
.end method
.method static f()V
new java/lang/IllegalStateException
dup
ldc "stop"
invokespecial java/lang/IllegalStateException/<init>(Ljava/lang/String;)V
athrow
.end method
