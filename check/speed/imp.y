/* Imp, as in charts_main.txt, for bison: reads a file so many times, and prints its lexemes and the processor time of one
   turn. It builds no tree. */
%{
#include <ctype.h>
#include <stdio.h>
#include <stdlib.h>
#include <string.h>
#include <time.h>

static const char *at;
static long lexemes;
static int yylex(void);
static void yyerror(const char *message) { fprintf(stderr, "%s\n", message); exit(1); }
%}
%token NAME NUMERAL ASSIGN PROGRAM BEGINS END VAR PROC PRINT WHILE DO DONE IF THEN ELSE FI CALL READ NOT
%%
program: PROGRAM declarations BEGINS statements END;
declarations: %empty | declarations declaration;
declaration: VAR NAME ASSIGN expression ';' | PROC NAME '(' NAME ')' BEGINS statements END;
statements: %empty | statements statement;
statement: NAME ASSIGN expression ';'
    | PRINT expression ';'
    | WHILE condition DO statements DONE
    | IF condition THEN statements ELSE statements FI
    | CALL NAME '(' expression ')' ';';
expression: term | expression '+' term | expression '-' term;
term: factor | term '*' factor | term '/' factor;
factor: NUMERAL | NAME | '(' expression ')' | READ;
condition: expression '<' expression | expression '=' expression | NOT condition;
%%
static const struct { const char *text; int token; } WORDS[] = {
    {"program", PROGRAM}, {"begin", BEGINS}, {"end", END}, {"var", VAR}, {"proc", PROC}, {"print", PRINT},
    {"while", WHILE}, {"do", DO}, {"done", DONE}, {"if", IF}, {"then", THEN}, {"else", ELSE}, {"fi", FI},
    {"call", CALL}, {"read", READ}, {"not", NOT},
};

static int word(const char *start, size_t length) {
    for (size_t k = 0; k < sizeof WORDS / sizeof WORDS[0]; k++)
        if (strlen(WORDS[k].text) == length && memcmp(WORDS[k].text, start, length) == 0)
            return WORDS[k].token;
    return NAME;
}

static int yylex(void) {
    while (isspace((unsigned char)*at))
        at++;
    if (*at == 0)
        return 0;
    lexemes++;
    const char *start = at;
    if (isalpha((unsigned char)*at)) {
        while (isalnum((unsigned char)*at) || *at == '_')
            at++;
        return word(start, (size_t)(at - start));
    }
    if (isdigit((unsigned char)*at)) {
        while (isdigit((unsigned char)*at))
            at++;
        return NUMERAL;
    }
    if (at[0] == ':' && at[1] == '=') {
        at += 2;
        return ASSIGN;
    }
    return *at++;
}

int main(int count, char **args) {
    if (count != 3)
        return 2;
    FILE *file = fopen(args[1], "r");
    if (file == NULL)
        return 2;
    static char text[1 << 20];
    text[fread(text, 1, sizeof text - 1, file)] = 0;
    long turns = atol(args[2]);
    clock_t before = clock();
    for (long k = 0; k < turns; k++) {
        at = text;
        yyparse();
    }
    double seconds = (double)(clock() - before) / CLOCKS_PER_SEC / (double)turns;
    long each = lexemes / turns;
    printf("%ld lexemes, %.3f ms, %.3f us a lexeme\n", each, seconds * 1e3, seconds * 1e6 / (double)each);
    return 0;
}
