.class public A
.super java/lang/Object
.method static first()V
nop
nop
.end method
.method public static main([Ljava/lang/String;)V
iadd
return
.end method
