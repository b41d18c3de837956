.foo
