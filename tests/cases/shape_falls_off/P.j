.class public A
.super java/lang/Object
.method public static main([Ljava/lang/String;)V
nop
.end method
