.class public A
.super java/lang/Object
.method public static main([Ljava/lang/String;)V
aconst_null
arraylength
pop
return
.end method
