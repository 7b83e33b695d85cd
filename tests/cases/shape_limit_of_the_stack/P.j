.class public A
.super java/lang/Object
.method public static main([Ljava/lang/String;)V
.limit stack 1
iconst_1
iconst_1
pop2
return
.end method
