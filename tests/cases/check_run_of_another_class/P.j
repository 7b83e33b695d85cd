.class A
.super java/lang/Object
.implements java/lang/Runnable
.class A
.super java/lang/Object
.method run()V
return
.end method
.method public static main([Ljava/lang/String;)V
return
.end method
