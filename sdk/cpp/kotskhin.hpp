// Kotskhin for C++17: owners that give their handles back. They are moved, never copied, and a refusal is thrown, by a class of its own.
//
// What is const only reads: any number of threads may do so at once, while none changes the same thing. A thing that was moved or closed
// has nothing, and its calls throw Nothing. OpenTelemetry's names are in <kotskhin/metrics.hpp>.
#pragma once
#include "kotskhin/archive.hpp"
#include "kotskhin/attributes.hpp"
#include "kotskhin/error.hpp"
#include "kotskhin/exports.hpp"
#include "kotskhin/gateway.hpp"
#include "kotskhin/handle.hpp"
#include "kotskhin/message.hpp"
#include "kotskhin/plan.hpp"
#include "kotskhin/rows.hpp"
#include "kotskhin/streams.hpp"
#include "kotskhin/version.hpp"
#include "kotskhin/writer.hpp"
