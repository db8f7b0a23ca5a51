;; Every control instruction, and the forms that C compilers seldom write.
(module
  (func (export "classify") (param i32) (result i32)
    block $default
      block $two
        block $one
          local.get 0
          br_table $one $two $default
        end
        i32.const 10
        return
      end
      i32.const 20
      return
    end
    i32.const 30)
  (func (export "if_alone") (param i32) (result i32) (local i32)
    local.get 0
    if
      i32.const 7
      local.set 1
    end
    local.get 1)
  (func (export "if_with_result") (param i32) (result i64)
    local.get 0
    if (result i64)
      i64.const -1
    else
      i64.const 9223372036854775807
    end)
  (func (export "empty_arms") (param i32)
    local.get 0
    if
    else
    end
    local.get 0
    if
      nop
    else
    end)
  (func (export "count_down") (param i32) (result i32) (local i32)
    block
      loop
        local.get 0
        i32.eqz
        br_if 1
        local.get 1
        local.get 0
        i32.add
        local.set 1
        local.get 0
        i32.const 1
        i32.sub
        local.tee 0
        br_if 0
      end
    end
    local.get 1)
  (func (export "after_transfer") (result i32)
    i32.const 1
    return
    unreachable
    i32.add
    drop)
  (func (export "choose") (param i64 i64 i32) (result i64)
    local.get 0
    local.get 1
    local.get 2
    select))
