/* The lists of names. */
#include "private.h"

const char *const boolnames[] = {
#define FLAG(long_name, name, code) name,
#include "names.def"
    NULL};
const char *const boolcodes[] = {
#define FLAG(long_name, name, code) code,
#include "names.def"
    NULL};
const char *const boolfnames[] = {
#define FLAG(long_name, name, code) #long_name,
#include "names.def"
    NULL};
const char *const numnames[] = {
#define NUMBER(long_name, name, code) name,
#include "names.def"
    NULL};
const char *const numcodes[] = {
#define NUMBER(long_name, name, code) code,
#include "names.def"
    NULL};
const char *const numfnames[] = {
#define NUMBER(long_name, name, code) #long_name,
#include "names.def"
    NULL};
const char *const strnames[] = {
#define STRING(long_name, name, code) name,
#include "names.def"
    NULL};
const char *const strcodes[] = {
#define STRING(long_name, name, code) code,
#include "names.def"
    NULL};
const char *const strfnames[] = {
#define STRING(long_name, name, code) #long_name,
#include "names.def"
    NULL};
