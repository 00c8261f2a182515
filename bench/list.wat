;; The work of list.asm in WebAssembly: nodes of a value and a link, one after the other in the memory, which each round uses anew.
(module
  (memory 1)
  (func $walk (param $node i32) (result i32)
    (local $sum i32)
    (loop $step
      (local.set $sum (i32.add (local.get $sum) (i32.load (local.get $node))))
      (br_if $step (local.tee $node (i32.load offset=4 (local.get $node)))))
    (local.get $sum))
  (func $round (param $seed i32) (result i32)
    (local $free i32) (local $head i32) (local $left i32) (local $sum i32)
    (local.set $free (i32.const 256))
    (local.set $left (i32.const 400))
    (loop $build
      (i32.store (local.get $free) (local.get $seed))
      (local.set $seed (i32.add (local.get $seed) (i32.const 1)))
      (i32.store offset=4 (local.get $free) (local.get $head))
      (local.set $head (local.get $free))
      (local.set $free (i32.add (local.get $free) (i32.const 8)))
      (br_if $build (local.tee $left (i32.sub (local.get $left) (i32.const 1)))))
    (local.set $left (i32.const 3))
    (loop $again
      (local.set $sum (i32.add (local.get $sum) (call $walk (local.get $head))))
      (br_if $again (local.tee $left (i32.sub (local.get $left) (i32.const 1)))))
    (local.get $sum))
  (func (export "main") (result i32)
    (local $left i32) (local $sum i32)
    (local.set $left (i32.const 600))
    (loop $next
      (local.set $sum (i32.add (local.get $sum) (call $round (local.get $left))))
      (br_if $next (local.tee $left (i32.sub (local.get $left) (i32.const 1)))))
    (local.get $sum)))
