;; Every section: imports of each kind but a second table and memory, exports, a start function, segments, and names.
(module
  (import "env" "write" (func $write (param i32 i32) (result i32)))
  (import "env" "base" (global $base i32))
  (import "env" "table" (table 8 16 funcref))
  (import "env" "memory" (memory 1 4))
  (global $next (mut i32) (i32.const 1024))
  (global $copy i32 (global.get $base))
  (global $wide i64 (i64.const -9223372036854775808))
  (func $begin
    global.get $next
    i32.const 16
    i32.add
    global.set $next)
  (func $twice (param i32) (result i32)
    local.get 0
    i32.const 1
    i32.shl)
  (func $grow (param i32) (result i32)
    local.get 0
    memory.grow
    memory.size
    i32.xor)
  (func $indirect (param i32) (result i32)
    i32.const 5
    local.get 0
    call_indirect (param i32) (result i32))
  (start $begin)
  (elem (i32.const 0) $twice $grow)
  (elem (global.get $base) $twice)
  (data (i32.const 16) "some bytes\00\ff\80")
  (data (global.get $base) "")
  (export "twice" (func $twice))
  (export "indirect" (func $indirect))
  (export "memory" (memory 0))
  (export "table" (table 0))
  (export "next" (global $copy)))
