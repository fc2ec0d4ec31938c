/* A plugin of clang. Its pass comes before that of ThreadSanitizer and puts in hooks where that one puts none: at an
 * access of 3, 5, 6 or 7 bytes or more than 16, at a struct that a call takes by value in memory, and at the operands of
 * a line of assembly. */
#include "llvm/IR/IRBuilder.h"
#include "llvm/IR/InlineAsm.h"
#include "llvm/IR/InstIterator.h"
#include "llvm/Passes/PassBuilder.h"
#include "llvm/Passes/PassPlugin.h"
#include "instructions.hpp"
#include <vector>

using namespace llvm;

namespace {

/* The sizes of accesses that ThreadSanitizer has hooks for. */
bool has_hook(uint64_t bytes) { return bytes && bytes <= 16 && !(bytes & (bytes - 1)); }

/* Puts hooks before instructions of a function. */
class Hooks {
public:
    explicit Hooks(Module *m) : module(m), sizes(m->getDataLayout()) {}

    uint64_t bytes_of(Type *type) const {
        TypeSize size = sizes.getTypeStoreSize(type);
        return size.isScalable() ? 0 : size.getFixedSize();
    }

    /* A call of the hook of this name for this many bytes at an address. */
    void put(Instruction *before, StringRef name, Value *address, uint64_t bytes, std::vector<int> more = {}) {
        IRBuilder<> maker(before);
        std::vector<Value *> arguments = {maker.CreatePointerCast(address, maker.getInt8PtrTy()),
                                          maker.getInt64(bytes)};
        for (int value : more) arguments.push_back(maker.getInt32(value));
        std::vector<Type *> types;
        for (Value *argument : arguments) types.push_back(argument->getType());
        FunctionType *type = FunctionType::get(maker.getVoidTy(), types, false);
        maker.CreateCall(module->getOrInsertFunction(name, type), arguments);
    }

private:
    Module *module;
    const DataLayout &sizes;
};

/* An access of a size that ThreadSanitizer has no hook for. */
void hook_access(Hooks &hooks, Instruction *access, StringRef name, Value *address, Type *type) {
    uint64_t bytes = hooks.bytes_of(type);
    if (bytes && !has_hook(bytes)) hooks.put(access, name, address, bytes);
}

/* The structs in memory that a call takes by value. */
void hook_arguments(Hooks &hooks, CallBase *call) {
    for (unsigned k = 0; k < call->arg_size(); k++)
        if (call->isByValArgument(k))
            hooks.put(call, "__tsan_read_range", call->getArgOperand(k), hooks.bytes_of(call->getParamByValType(k)));
}

/* An operand of a line of assembly that is memory. */
struct Operand {
    Value *address;
    uint64_t bytes;
    bool is_output;
};

std::vector<Operand> operands_of(const Hooks &hooks, CallBase *line, const InlineAsm::ConstraintInfoVector &all) {
    std::vector<Operand> found;
    unsigned k = 0;
    for (const InlineAsm::ConstraintInfo &one : all) {
        bool is_output = one.Type == InlineAsm::isOutput;
        if (!(is_output && one.isIndirect) && one.Type != InlineAsm::isInput) continue;
        unsigned number = k++;
        Type *type = one.isIndirect ? line->getAttributes().getParamElementType(number) : nullptr;
        uint64_t bytes = type && type->isSized() ? hooks.bytes_of(type) : 0;
        if (has_hook(bytes)) found.push_back({line->getArgOperand(number), bytes, is_output});
    }
    return found;
}

bool clobbers_memory(const InlineAsm::ConstraintInfoVector &all) {
    for (const InlineAsm::ConstraintInfo &one : all)
        if (one.Type == InlineAsm::isClobber && one.Codes.size() == 1 && one.Codes[0] == "{memory}") return true;
    return false;
}

bool is_output(const std::vector<Operand> &operands, Value *address) {
    for (const Operand &one : operands)
        if (one.is_output && one.address == address) return true;
    return false;
}

/* Hooks for the memory operands of a line of assembly. An instruction with `lock` is an atomic update. A move beside
 * which the compiler moves no other access is an atomic load or store. */
void hook_assembly(Hooks &hooks, CallBase *line) {
    const InlineAsm *text = cast<InlineAsm>(line->getCalledOperand());
    Instructions all(text->getAsmString());
    if (all.access_nothing) return;
    InlineAsm::ConstraintInfoVector constraints = text->ParseConstraints();
    std::vector<Operand> operands = operands_of(hooks, line, constraints);
    bool orders = all.are_moves && clobbers_memory(constraints);
    bool is_first = true;
    for (bool outputs : {false, true})
        for (const Operand &one : operands) {
            if (one.is_output != outputs) continue;
            if (!outputs && all.is_atomic && is_output(operands, one.address)) continue;
            StringRef name = all.is_atomic ? "__tsan_assembly_update"
                : outputs                  ? (orders ? "__tsan_assembly_store" : "__tsan_assembly_write")
                : orders                   ? "__tsan_assembly_load"
                                           : "__tsan_assembly_read";
            hooks.put(line, name, one.address, one.bytes, {is_first});
            is_first = false;
        }
}

void change(Hooks &hooks, Instruction *one) {
    if (auto *load = dyn_cast<LoadInst>(one)) {
        hook_access(hooks, load, "__tsan_read_range", load->getPointerOperand(), load->getType());
    } else if (auto *store = dyn_cast<StoreInst>(one)) {
        Type *type = store->getValueOperand()->getType();
        hook_access(hooks, store, "__tsan_write_range", store->getPointerOperand(), type);
    } else if (auto *call = dyn_cast<CallBase>(one)) {
        if (call->isInlineAsm()) hook_assembly(hooks, call);
        else if (!isa<IntrinsicInst>(call)) hook_arguments(hooks, call);
    }
}

struct Pass : PassInfoMixin<Pass> {
    static bool isRequired() { return true; }

    PreservedAnalyses run(Function &f, FunctionAnalysisManager &) {
        if (!f.hasFnAttribute(Attribute::SanitizeThread)) return PreservedAnalyses::all();
        Hooks hooks(f.getParent());
        std::vector<Instruction *> all;
        for (Instruction &one : instructions(f)) all.push_back(&one);
        for (Instruction *one : all) change(hooks, one);
        return PreservedAnalyses::none();
    }
};

void add_pass(PassBuilder &builder) {
    builder.registerOptimizerLastEPCallback(
        [](ModulePassManager &all, auto &&...) { all.addPass(createModuleToFunctionPassAdaptor(Pass())); });
}

} // namespace

extern "C" LLVM_ATTRIBUTE_WEAK PassPluginLibraryInfo llvmGetPassPluginInfo() {
    return {LLVM_PLUGIN_API_VERSION, "racebench", "1", add_pass};
}
