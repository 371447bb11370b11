#ifndef CTYPE_H
#define CTYPE_H
int isdigit(int);
int isspace(int);
#endif
