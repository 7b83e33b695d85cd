.class public A
.super java/lang/Object
.method public static main([Ljava/lang/String;)V
.limit locals 1
iconst_1
istore_1
return
.end method
