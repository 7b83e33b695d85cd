; A static of each kind, and an array's lock that is never left.
.class public A
.super java/lang/Object
.field static i I = -7
.field static a [I
.field static o Ljava/lang/Object;
.field static t Ljava/lang/String;
.field static u Ljava/lang/String;
.field static p Ljava/io/PrintStream;
.field static n LA;
.method public static main([Ljava/lang/String;)V
iconst_3
newarray int
putstatic A/a [I
new A
putstatic A/o Ljava/lang/Object;
ldc "x"
putstatic A/t Ljava/lang/String;
ldc "y"
putstatic A/u Ljava/lang/String;
getstatic java/lang/System/out Ljava/io/PrintStream;
putstatic A/p Ljava/io/PrintStream;
getstatic A/a [I
monitorenter
return
.end method
