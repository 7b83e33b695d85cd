; The method of the second class gives its object where it should give an int.
.class public A
.super java/lang/Object
.method public static main([Ljava/lang/String;)V
return
.end method
.class public B
.super java/lang/Object
.method get()I
aload_0
ireturn
.end method
