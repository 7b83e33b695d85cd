.class public A
.super java/lang/Object
.method public static main([Ljava/lang/String;)V
iconst_m1
newarray int
pop
return
.end method
