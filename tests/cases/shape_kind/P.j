.class public A
.super java/lang/Object
.method public static main([Ljava/lang/String;)V
iconst_1
aconst_null
iadd
pop
return
.end method
