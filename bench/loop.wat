;; The work of loop.asm in WebAssembly.
(module
  (func (export "main") (result i32)
    (local $state i32) (local $sum i32) (local $high i32) (local $left i32)
    (local.set $state (i32.const 12345))
    (local.set $left (i32.const 1250000))
    (loop $next
      (local.set $state (i32.add (i32.mul (local.get $state) (i32.const 1103515245)) (i32.const 12345)))
      (local.set $high (i32.shr_u (local.get $state) (i32.const 16)))
      (local.set $sum (i32.add (local.get $sum) (local.get $high)))
      (local.set $sum (i32.xor (local.get $sum) (i32.and (local.get $high) (i32.const 1))))
      (br_if $next (local.tee $left (i32.sub (local.get $left) (i32.const 1)))))
    (local.get $sum)))
