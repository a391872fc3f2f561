/* Steps that can fail, with one place that undoes them: __leave in place of goto. */
#include <windows.h>
#include <stdio.h>

enum step { STEP_NONE, STEP_OPEN, STEP_READ = 4, STEP_PARSE };

static HRESULT Run(enum step failing)
{
    HRESULT hr = E_FAIL;
    BOOL opened = FALSE;

    __try {
        if (failing == STEP_OPEN)
            __leave;
        opened = TRUE;
        if (failing == STEP_READ)
            __leave;
        if (failing == STEP_PARSE) {
            hr = E_INVALIDARG;
            __leave;
        }
        hr = S_OK;
    } __finally {
        if (opened)
            printf("closed\n");
        printf("abnormal: %d\n", AbnormalTermination());
    }
    return hr;
}

int main(void)
{
    static const int steps[] = {
        STEP_NONE,
        STEP_OPEN,
        STEP_READ,
        STEP_PARSE,
    };
    size_t i;

    for (i = 0; i < _countof(steps); ++i) {
        HRESULT hr = Run(steps[i]);
        printf("step %d: %d %d\n", steps[i], SUCCEEDED(hr), hr == E_INVALIDARG);
    }
    return 0;
}
