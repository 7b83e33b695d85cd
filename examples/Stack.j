; A stack of ints: an object with an array and a size. The numbers 3, 2 and 1 go in, and come out with the last one first. Calls
; are no events, but each read and each write of a field or an item is one: five for a push, and five for a pop. A fourth push
; would be the fault index.
.class public Stack
.super java/lang/Object
.field private items [I
.field private size I
.method public <init>(I)V
aload_0
invokespecial java/lang/Object/<init>()V
aload_0
iload_1
newarray int
putfield Stack/items [I
return
.end method
.method public push(I)V
aload_0
getfield Stack/items [I
aload_0
getfield Stack/size I
iload_1
iastore
aload_0
dup
getfield Stack/size I
iconst_1
iadd
putfield Stack/size I
return
.end method
.method public pop()I
aload_0
dup
getfield Stack/size I
iconst_1
isub
putfield Stack/size I
aload_0
getfield Stack/items [I
aload_0
getfield Stack/size I
iaload
ireturn
.end method
.method public static main([Ljava/lang/String;)V
new Stack
dup
iconst_3
invokespecial Stack/<init>(I)V
astore_1
iconst_3
istore_2
Push:
aload_1
iload_2
invokevirtual Stack/push(I)V
iinc 2 -1
iload_2
ifgt Push
iconst_3
istore_2
Pop:
getstatic java/lang/System/out Ljava/io/PrintStream;
aload_1
invokevirtual Stack/pop()I
invokevirtual java/io/PrintStream/println(I)V
iinc 2 -1
iload_2
ifgt Pop
getstatic java/lang/System/out Ljava/io/PrintStream;
ldc "empty"
invokevirtual java/io/PrintStream/println(Ljava/lang/String;)V
return
.end method
