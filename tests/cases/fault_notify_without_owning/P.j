.class public A
.super java/lang/Object
.method public static main([Ljava/lang/String;)V
new java/lang/Object
dup
invokespecial java/lang/Object/<init>()V
invokevirtual java/lang/Object/notify()V
return
.end method
