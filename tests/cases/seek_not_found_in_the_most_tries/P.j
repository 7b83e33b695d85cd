.class public A
.super java/lang/Object
.method public static main([Ljava/lang/String;)V
return
.end method
