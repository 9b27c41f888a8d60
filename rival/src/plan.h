// The plan file: judged, and read (docs/plan-file.md).
#pragma once
#include "network.h"
#include "refusal.h"
#include <optional>
#include <string>
#include <variant>

std::variant<Refusal, Network> read_plan(const std::string &bytes);
