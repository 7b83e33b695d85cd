; An array takes a word more than its items, so this one passes the limit of 4,194,304 words.
.class public A
.super java/lang/Object
.method public static main([Ljava/lang/String;)V
ldc 4194304
newarray int
pop
return
.end method
