.class public A
.super java/lang/Object
.method public static main([Ljava/lang/String;)V
iconst_1
iconst_0
idiv
pop
return
.end method
