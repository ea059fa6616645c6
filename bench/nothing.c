/* A program that does nothing: what every program here needs before it has begun. */
int main(void)
{
    return 0;
}
