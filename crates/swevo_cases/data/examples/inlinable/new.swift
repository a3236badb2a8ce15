@inlinable public func f() -> Int { return 2 }
public func g() -> Int { return secret() }
@inlinable public func h() -> Int { return 3 }
func secret() -> Int { return 2 }
