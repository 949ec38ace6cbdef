/* Worked out by compare/paper: cargo run --manifest-path compare/Cargo.toml --bin paper-stored */
static const int64_t stored_forward[7] = {12, 4, 6, 2006586, -122145557622, 622097703921, 53876704976};
static const int64_t stored_inverse[7] = {12, 4, 1, 0, -122145678901, 622012345678, 53876543210};
static const int64_t stored_arau_forward[7] = {1, 3, 10, 2020000, -113105206217, 623631172148, 71174796538};
static const int64_t stored_arau_inverse[7] = {1, 3, 6, 2000000, -113105165410, 623631179950, 71174811140};
static const int64_t stored_forward_2009[7] = {12, 4, 7, 2006586, -122145557622, 622097703921, 53876704976};
static const int64_t stored_inverse_2009[7] = {12, 4, 1, 0, -122145800014, 621926987434, 53876381392};
static const int64_t stored_row[24] = {0, 1, 3, 10, 2020000, -113105206217, 623631172148, 71174796538, 9, 0, 0, 0, 0, 0, 0, 0, 11, 0, 0, 0, 0, 0, 0, 0};
static const int64_t stored_row_back[8] = {0, 1, 3, 6, 2000000, -113105165410, 623631179950, 71174811140};
static const int64_t stored_join[26] = {66, 67, 1, 0, 5, 2000000, -1100000, 85100000, 500000, 12500, -8300, 40250, -1350, 84, 0, 5, 2000000, 7, 2006586, -15832, -4363, -9706, 1, 2, 3, 4};
#define stored_lot_plan "C\tARAU\t7\t3\t-43673705\t53017498\n"
#define stored_lot_plan_no_step "C\tARAU\t7\t3\t-43673869\t53017593\n"
static const int64_t stored_lot_plan_millimetres[2] = {-43673705, 53017498};
static const int64_t stored_grid_velocity[16] = {-133, -56, 119, 86, 0, 7, 2010000, 7, 2020000, 109, 146, -42, 0, 0, 0, 0};
static const int64_t stored_grid_fault_none[3] = {0, 0, 0};
static const int64_t stored_grid_fault_over[3] = {30, 0, 0};
static const int64_t stored_grid_fault[3] = {22, 3, 7};
static const uint64_t stored_cartesian[3] = {UINT64_C(0xc1341b3c564d721e), UINT64_C(0x4157c2f4d78bcff2), UINT64_C(0x41172183aa5b1cab)};
static const int64_t stored_cartesian_units[3] = {-131769233712, 622894736791, 37897691636};
static const int64_t stored_geodetic[3] = {1234567890, 36700000123, 456789};
static const uint64_t stored_cassini[2] = {UINT64_C(0x40d8250a826098bf), UINT64_C(0x4097a8424972f334)};
static const int64_t stored_cassini_millimetres[2] = {24724164, 1514065};
static const uint64_t stored_rso_forward[2] = {UINT64_C(0xc11eac6007ba0f2c), UINT64_C(0x413a8ad6f22e13fe)};
static const int64_t stored_rso_reverse[2] = {2345678901, 38765432109};
static const int64_t stored_rounded[1] = {-1234568};
static const int64_t stored_later[2] = {1, 2};
static const int64_t stored_later_fault[3] = {22, 2, 35};
static const int64_t stored_later_fault_first[3] = {22, 1, 35};
static const int64_t stored_later_fault_ids[3] = {16, 0, 0};
static const int64_t stored_later_fault_none[3] = {0, 0, 0};
