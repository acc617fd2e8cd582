/* Makes an account, and deposits into it twice: the cell stays the same, and what it holds changes. */
#include <stdio.h>

#include "record.h"

int main(void)
{
    struct SysState memory = {CG_UNBOUNDED};
    deposit_result account = cg_new(&memory, sizeof *account);
    deposit_result behind;
    deposit_argument argument;
    if (account == NULL) {
        return 1;
    }
    account->m0 = 7;
    account->m1 = 100;
    account->m2 = 0;
    argument.m0 = account;
    argument.m1 = 20;
    argument.m0 = deposit(argument);
    argument.m1 = 3;
    behind = deposit(argument);
    printf("owner: %u\n", (unsigned)behind->m0);
    printf("balance: %llu\n", (unsigned long long)balance(behind));
    printf("entries: %u\n", (unsigned)behind->m2);
    printf("same cell: %s\n", behind == account ? "yes" : "no");
    cg_free(&memory, behind);
    return 0;
}
