SELECT frob FROM from;
