public func f() -> Int { return 2 }
func g() -> Int { return 2 }
