#ifndef VALUE_H
#define VALUE_H
struct value
{
  int first;
  int second;
};
#endif
