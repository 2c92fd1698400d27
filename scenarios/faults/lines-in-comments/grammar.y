/* a
 b
 */ %token A %% s : A

 @