.class public A
.super java/lang/Object
.method public static main([Ljava/lang/String;)V
return
.end method
.method static f()I
aconst_null
areturn
.end method
