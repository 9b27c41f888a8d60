// What the console refuses: a number and a place (docs/refusals.md).
#pragma once

struct Refusal {
    int number;
    long place;
};
