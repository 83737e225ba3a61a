/* A function for each kind of instruction that instructions/run looks for, one whose move of 64 bits it counts apart, and one
   that it must leave alone. */

double ldexp(double, int);

double product(double a, double b)
{
    return a * b;
}

double widened(float a)
{
    return a;
}

float narrowed(double a)
{
    return (float)a;
}

int compared(double a, double b)
{
    return a < b;
}

long double x87(long double a)
{
    return a + a;
}

double called(double a)
{
    return ldexp(a, 3);
}

double moved(const double *a)
{
    return *a;
}

float single(float a, float b)
{
    return a * b + 0.5f;
}
