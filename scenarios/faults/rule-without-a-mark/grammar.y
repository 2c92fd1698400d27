s

 :