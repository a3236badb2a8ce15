@inlinable public func f() -> Int { return 1 }
public func g() -> Int { return 1 }
@inlinable public func h() -> Int { return g() }
