.class java/lang/System
.super java/lang/Object
.field public out Ljava/io/PrintStream;
.method public static main([Ljava/lang/String;)V
new java/lang/System
getfield java/lang/System/out Ljava/io/PrintStream;
pop
return
.end method
