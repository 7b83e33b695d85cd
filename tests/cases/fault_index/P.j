.class public A
.super java/lang/Object
.method public static main([Ljava/lang/String;)V
iconst_2
newarray int
iconst_2
iaload
pop
return
.end method
