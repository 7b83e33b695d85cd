; A box is put in its static before its items are. A reader throws where it finds no box, and meets null where it finds a bare one.
.class public Box
.super java/lang/Thread
.field static it LBox;
.field items [I
.method public <init>()V
aload_0
invokespecial java/lang/Thread/<init>()V
return
.end method
.method public run()V
getstatic Box/it LBox;
astore_1
aload_1
ifnull None
aload_1
getfield Box/items [I
arraylength
pop
return
None:
new java/lang/IllegalStateException
dup
invokespecial java/lang/IllegalStateException/<init>()V
athrow
.end method
.method public static main([Ljava/lang/String;)V
new Box
astore_1
aload_1
invokespecial Box/<init>()V
aload_1
invokevirtual Box/start()V
aload_1
putstatic Box/it LBox;
aload_1
iconst_4
newarray int
putfield Box/items [I
return
.end method
