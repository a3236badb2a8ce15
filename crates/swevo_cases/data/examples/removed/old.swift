public func f() -> Int { return 1 }
public func g() -> Int { return 1 }
public func h() -> Int { return 1 }
