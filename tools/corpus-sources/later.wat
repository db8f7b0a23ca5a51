;; What came after version 1.0 and is read: sign extension, memory.copy and memory.fill.
(module
  (memory 1 2)
  (func (export "low") (param i32 i64) (result i64)
    local.get 0
    i32.extend8_s
    i32.extend16_s
    drop
    local.get 1
    i64.extend8_s
    i64.extend16_s
    i64.extend32_s)
  (func (export "copy") (param i32 i32 i32)
    local.get 0
    local.get 1
    local.get 2
    memory.copy)
  (func (export "fill") (param i32 i32 i32)
    block
      local.get 0
      local.get 1
      local.get 2
      memory.fill
      br 0
      memory.copy
    end))
