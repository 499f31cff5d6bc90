// The names of OpenTelemetry's metrics API and SDK for C++, over the kit.
//
//     auto provider = std::make_shared<kotskhin::metrics::MeterProvider>(kotskhin::metrics::Resource{"shop"});
//     auto requests = provider->GetMeter("app")->CreateUInt64Counter("requests", "requests that were served", "1");
//     requests->Add(1, {{"route", "/"}, {"status", 200}});
//
// - Instruments come first. They are declared until the provider starts: with the first recording, or by Start. One that is declared later
//   is refused, as is one that the plan refuses: it records nothing.
// - Recording never throws. What is refused is counted (RefusedCount) and told to a hook (Options::on_refused), by the name of the
//   instrument and the place where it was declared.
// - Threads record each into a log of its own, which is taken in before each collection, where it is full, and when its thread ends. So
//   totals are exact. A recording waits for others only where its log is full, while a collection copies the points.
// - Memory is bounded. A provider holds so many sets of attributes, and no more (Options::cache); the streams have Options::limit.
// - Values are whole numbers. Choose the unit so that they are.
#pragma once
#include "kotskhin/metrics/exporters.hpp"
#include "kotskhin/metrics/instruments.hpp"
#include "kotskhin/metrics/provider.hpp"
#include "kotskhin/metrics/reader.hpp"
