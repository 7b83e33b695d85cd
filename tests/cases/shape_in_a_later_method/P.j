; main and the method that it calls are right, and the last method, which nobody calls, gives a value that isn't there.
.class public A
.super java/lang/Object
.method public static main([Ljava/lang/String;)V
iconst_1
invokestatic A/first(I)I
pop
return
.end method
.method static first(I)I
iload_0
ireturn
.end method
.method static last(I)I
ireturn
.end method
