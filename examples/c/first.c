/* A first program: a window that has read the hull lines may not write the open notes. */
#include <stdio.h>
#include "hvozdalka.h"

int main(void)
{
    static const uint8_t setup[] = {HV_SWITCHES_RECORD, 1, 0, 0, 0, 0, 0, 0, HV_USER_RECORD, 3, 0, 0, 0, 0, 0, 0,
                                    HV_OBJECT_RECORD, HV_FILE, 0, 0, 0, 0, 0, 0, HV_OBJECT_RECORD, HV_FILE, 3, 0, 0, 0, 0, 0};
    static hv_facility f;
    if (hv_version() != HV_VERSION || hv_facility_size() != sizeof f || hv_read_setup_at(setup, sizeof setup, &f).number != HV_ACCEPTED) return 1;
    hv_call calls[] = {{HV_LOGIN, 0, 0, 0, 0}, {HV_READ_OPEN, 0, 1, 0, 0}, {HV_WRITE_OPEN, 0, 0, 0, 0}};
    for (int i = 0; i < 3; i++) printf("%d\n", hv_enforce_at(&f, calls[i]).number);
    return 0;
}
